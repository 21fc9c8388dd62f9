class X {
    static int f(byte x) {
        if (x == 7) {
            return (int) (x * 1.5f);
        }
        return x;
    }
}
