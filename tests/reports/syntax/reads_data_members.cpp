struct a {
    int b;
    int c = 1;
    int d{2};
    int e[2] = {3, 4};
    const char* f = nullptr;
    static constexpr int g = 5;
    constexpr static inline int h = 6;
};
