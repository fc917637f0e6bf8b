let   loop
100


*x* <=? a/b:c 