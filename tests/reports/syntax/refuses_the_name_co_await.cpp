constexpr int co_await = 1;
