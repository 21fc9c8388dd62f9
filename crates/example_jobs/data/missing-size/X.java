class X {
    static byte f(byte[] a) {
        return (byte) (a[0] + a[1]);
    }
}
