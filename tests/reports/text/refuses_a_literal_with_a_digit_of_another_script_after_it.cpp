constexpr int a = 1٣;
