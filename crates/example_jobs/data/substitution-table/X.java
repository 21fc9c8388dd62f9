class X {
    static final byte[] T = new byte[256];

    static {
        for (int i = 0; i < 256; i++) {
            T[i] = (byte) (i ^ 99);
        }
    }

    static byte f(byte x) {
        return T[x & 255];
    }
}
