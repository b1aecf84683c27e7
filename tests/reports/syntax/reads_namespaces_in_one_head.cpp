namespace a::b::c {
    constexpr int d = 1;
}
