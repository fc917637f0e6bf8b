(greet "你好" "再见")
; 长城 is two letters and four columns.
(list (hash "长" "long") (hash "城" "wall"))
