class X {
    static final byte[][] S = new byte[16][16];

    static {
        for (int r = 0; r < 16; r++) {
            for (int c = 0; c < 16; c++) {
                S[r][c] = (byte) ((16 * r + c) ^ 99);
            }
        }
    }

    static byte f(byte x) {
        return S[x >> 4 & 15][x & 15];
    }
}
