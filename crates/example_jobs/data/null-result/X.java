class X {
    static byte[] f(byte x) {
        if (x == 0) {
            return null;
        }
        byte[] a = {x, (byte) ~x};
        return a;
    }
}
