namespace library {
constexpr int version = 3;
}
}
