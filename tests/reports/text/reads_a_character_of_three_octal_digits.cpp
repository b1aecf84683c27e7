constexpr char a = '\101';
