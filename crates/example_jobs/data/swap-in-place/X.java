class X {
    static void f(byte[] a) {
        a[0] ^= a[1];
        a[1] ^= a[0];
        a[0] ^= a[1];
    }
}
