consteval { ; }
 consteval { ;
