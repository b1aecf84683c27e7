// ߿ࠀ퟿￿𐀀􏿿
constexpr int a = 1;
