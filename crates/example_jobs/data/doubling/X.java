class X {
    static byte twice(byte x) {
        return (byte) (x < 0 ? x << 1 ^ 0x1b : x << 1);
    }

    static byte f(byte x) {
        return (byte) (twice(twice(x)) ^ x);
    }
}
