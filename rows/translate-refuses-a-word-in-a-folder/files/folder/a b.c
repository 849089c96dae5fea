task t {
    x = 1;
}
