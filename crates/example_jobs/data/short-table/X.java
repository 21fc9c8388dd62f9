class X {
    static final byte[] T = new byte[255];

    static {
        for (int i = 0; i < T.length; i++) {
            T[i] = (byte) (i ^ 99);
        }
    }

    static byte f(byte x) {
        return T[x & 255];
    }
}
