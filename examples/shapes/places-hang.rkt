; if: nothing else
()
(if)
(if (alpha beta))
(if (alpha beta) gamma)
(if (alpha beta) gamma delta)

; if: a comment at the line's end
(; c
)
(; c
if)
(if ; c
)
(; c
if (alpha beta))
(if ; c
(alpha beta))
(if (alpha beta) ; c
)
(; c
if (alpha beta) gamma)
(if ; c
(alpha beta) gamma)
(if (alpha beta) ; c
gamma)
(if (alpha beta) gamma ; c
)
(; c
if (alpha beta) gamma delta)
(if ; c
(alpha beta) gamma delta)
(if (alpha beta) ; c
gamma delta)
(if (alpha beta) gamma ; c
delta)
(if (alpha beta) gamma delta ; c
)

; if: a comment on a line of its own
(
; c
)
(
; c
if)
(if
; c
)
(
; c
if (alpha beta))
(if
; c
(alpha beta))
(if (alpha beta)
; c
)
(
; c
if (alpha beta) gamma)
(if
; c
(alpha beta) gamma)
(if (alpha beta)
; c
gamma)
(if (alpha beta) gamma
; c
)
(
; c
if (alpha beta) gamma delta)
(if
; c
(alpha beta) gamma delta)
(if (alpha beta)
; c
gamma delta)
(if (alpha beta) gamma
; c
delta)
(if (alpha beta) gamma delta
; c
)

; if: a block comment
(#| c |#)
(#| c |# if)
(if #| c |#)
(#| c |# if (alpha beta))
(if #| c |# (alpha beta))
(if (alpha beta) #| c |#)
(#| c |# if (alpha beta) gamma)
(if #| c |# (alpha beta) gamma)
(if (alpha beta) #| c |# gamma)
(if (alpha beta) gamma #| c |#)
(#| c |# if (alpha beta) gamma delta)
(if #| c |# (alpha beta) gamma delta)
(if (alpha beta) #| c |# gamma delta)
(if (alpha beta) gamma #| c |# delta)
(if (alpha beta) gamma delta #| c |#)

; if: a datum comment
(#;(x y))
(#;(x y) if)
(if #;(x y))
(#;(x y) if (alpha beta))
(if #;(x y) (alpha beta))
(if (alpha beta) #;(x y))
(#;(x y) if (alpha beta) gamma)
(if #;(x y) (alpha beta) gamma)
(if (alpha beta) #;(x y) gamma)
(if (alpha beta) gamma #;(x y))
(#;(x y) if (alpha beta) gamma delta)
(if #;(x y) (alpha beta) gamma delta)
(if (alpha beta) #;(x y) gamma delta)
(if (alpha beta) gamma #;(x y) delta)
(if (alpha beta) gamma delta #;(x y))

; if: a keyword
(#:key)
(#:key if)
(if #:key)
(#:key if (alpha beta))
(if #:key (alpha beta))
(if (alpha beta) #:key)
(#:key if (alpha beta) gamma)
(if #:key (alpha beta) gamma)
(if (alpha beta) #:key gamma)
(if (alpha beta) gamma #:key)
(#:key if (alpha beta) gamma delta)
(if #:key (alpha beta) gamma delta)
(if (alpha beta) #:key gamma delta)
(if (alpha beta) gamma #:key delta)
(if (alpha beta) gamma delta #:key)

; if: a dot
(if . (alpha beta))
(if (alpha beta) . gamma)
(if (alpha beta) gamma . delta)
(if . (alpha beta) . gamma)
(if . (alpha beta) . gamma delta)
(if (alpha beta) . gamma . delta)

; if: a here string
(#<<E
x
E
)
(#<<E
x
E
(alpha beta))
(if #<<E
x
E
)
(#<<E
x
E
(alpha beta) gamma)
(if #<<E
x
E
gamma)
(if (alpha beta) #<<E
x
E
)
(#<<E
x
E
(alpha beta) gamma delta)
(if #<<E
x
E
gamma delta)
(if (alpha beta) #<<E
x
E
delta)
(if (alpha beta) gamma #<<E
x
E
)

; if: a string of two lines
("x
  y")
("x
  y" (alpha beta))
(if "x
  y")
("x
  y" (alpha beta) gamma)
(if "x
  y" gamma)
(if (alpha beta) "x
  y")
("x
  y" (alpha beta) gamma delta)
(if "x
  y" gamma delta)
(if (alpha beta) "x
  y" delta)
(if (alpha beta) gamma "x
  y")
