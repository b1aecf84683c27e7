constexpr char a = ''';
