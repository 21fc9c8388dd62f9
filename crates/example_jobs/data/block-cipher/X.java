class X {
    static void encrypt(int[] v, int[] k) {
        int a = v[0];
        int b = v[1];
        int sum = 0;
        for (int round = 0; round < 32; round++) {
            sum += 0x9e3779b9;
            a += (b << 4) + k[0] ^ b + sum ^ (b >>> 5) + k[1];
            b += (a << 4) + k[2] ^ a + sum ^ (a >>> 5) + k[3];
        }
        v[0] = a;
        v[1] = b;
    }

    static int f(byte x, byte y) {
        int[] v = {x, y};
        int[] k = {0x01234567, 0x89abcdef, 0x02468ace, 0x13579bdf};
        encrypt(v, k);
        return v[0] ^ v[1];
    }
}
