constexpr int contract_assert = 1;
