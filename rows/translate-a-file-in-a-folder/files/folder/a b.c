task t {
    for (;;) taskYIELD();
}
