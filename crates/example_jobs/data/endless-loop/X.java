class X {
    static int f(byte x) {
        int i = 0;
        while (i != x) {
            i += 2;
        }
        return i;
    }
}
