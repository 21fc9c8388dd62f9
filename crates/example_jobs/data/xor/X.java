class X {
    static byte f(byte x, byte y) {
        return (byte) (x ^ y);
    }
}
