constexpr/**/int/* b */a/*
*/=//
1/***/;/** c **/