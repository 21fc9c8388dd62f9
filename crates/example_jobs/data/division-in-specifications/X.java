class X {
    static int f(byte x) {
        return (x & 255) >>> 3;
    }
}
