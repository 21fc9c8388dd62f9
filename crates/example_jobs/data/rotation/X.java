class X {
    static byte f(byte x) {
        int word = x & 255;
        return (byte) (word << 3 | word >>> 5);
    }
}
