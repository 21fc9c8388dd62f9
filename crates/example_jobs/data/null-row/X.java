class X {
    static byte f(byte x) {
        byte[][] rows = new byte[3][];
        rows[0] = new byte[] {7, 8};
        rows[2] = rows[0];
        return rows[x & 3][x >> 2 & 1];
    }
}
