int f() noexcept; int g() noexcept noexcept;
