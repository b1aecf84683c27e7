typename [: ^^int :] a = 1;
constexpr typename [: ^^int :] b = 2;
const typename [: ^^char :]* f(typename [: ^^int :] c);
