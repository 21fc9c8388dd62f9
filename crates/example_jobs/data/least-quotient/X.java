class X {
    static int f() {
        int least = Integer.MIN_VALUE;
        int minus_one = -1;
        return least / minus_one;
    }
}
