class X {
    static byte f(byte x) {
        return x;
    }

    static byte f(byte x, byte y) {
        return (byte) (x & y);
    }
}
