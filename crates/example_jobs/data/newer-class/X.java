class X {
    static byte f(byte x) {
        return (byte) (x + 1);
    }
}
