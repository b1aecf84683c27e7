/* é€😀 */ constexpr int a = /* é€😀 */ 1 / 0;
