; f: nothing else
()
(f)
(f alpha)
(f alpha (beta gamma))
(f alpha (beta gamma) delta)

; f: a comment at the line's end
(; c
)
(; c
f)
(f ; c
)
(; c
f alpha)
(f ; c
alpha)
(f alpha ; c
)
(; c
f alpha (beta gamma))
(f ; c
alpha (beta gamma))
(f alpha ; c
(beta gamma))
(f alpha (beta gamma) ; c
)
(; c
f alpha (beta gamma) delta)
(f ; c
alpha (beta gamma) delta)
(f alpha ; c
(beta gamma) delta)
(f alpha (beta gamma) ; c
delta)
(f alpha (beta gamma) delta ; c
)

; f: a comment on a line of its own
(
; c
)
(
; c
f)
(f
; c
)
(
; c
f alpha)
(f
; c
alpha)
(f alpha
; c
)
(
; c
f alpha (beta gamma))
(f
; c
alpha (beta gamma))
(f alpha
; c
(beta gamma))
(f alpha (beta gamma)
; c
)
(
; c
f alpha (beta gamma) delta)
(f
; c
alpha (beta gamma) delta)
(f alpha
; c
(beta gamma) delta)
(f alpha (beta gamma)
; c
delta)
(f alpha (beta gamma) delta
; c
)

; f: a block comment
(#| c |#)
(#| c |# f)
(f #| c |#)
(#| c |# f alpha)
(f #| c |# alpha)
(f alpha #| c |#)
(#| c |# f alpha (beta gamma))
(f #| c |# alpha (beta gamma))
(f alpha #| c |# (beta gamma))
(f alpha (beta gamma) #| c |#)
(#| c |# f alpha (beta gamma) delta)
(f #| c |# alpha (beta gamma) delta)
(f alpha #| c |# (beta gamma) delta)
(f alpha (beta gamma) #| c |# delta)
(f alpha (beta gamma) delta #| c |#)

; f: a datum comment
(#;(x y))
(#;(x y) f)
(f #;(x y))
(#;(x y) f alpha)
(f #;(x y) alpha)
(f alpha #;(x y))
(#;(x y) f alpha (beta gamma))
(f #;(x y) alpha (beta gamma))
(f alpha #;(x y) (beta gamma))
(f alpha (beta gamma) #;(x y))
(#;(x y) f alpha (beta gamma) delta)
(f #;(x y) alpha (beta gamma) delta)
(f alpha #;(x y) (beta gamma) delta)
(f alpha (beta gamma) #;(x y) delta)
(f alpha (beta gamma) delta #;(x y))

; f: a keyword
(#:key)
(#:key f)
(f #:key)
(#:key f alpha)
(f #:key alpha)
(f alpha #:key)
(#:key f alpha (beta gamma))
(f #:key alpha (beta gamma))
(f alpha #:key (beta gamma))
(f alpha (beta gamma) #:key)
(#:key f alpha (beta gamma) delta)
(f #:key alpha (beta gamma) delta)
(f alpha #:key (beta gamma) delta)
(f alpha (beta gamma) #:key delta)
(f alpha (beta gamma) delta #:key)

; f: a dot
(f . alpha)
(f alpha . (beta gamma))
(f alpha (beta gamma) . delta)
(f . alpha . (beta gamma))
(f . alpha . (beta gamma) delta)
(f alpha . (beta gamma) . delta)

; f: a here string
(#<<E
x
E
)
(#<<E
x
E
alpha)
(f #<<E
x
E
)
(#<<E
x
E
alpha (beta gamma))
(f #<<E
x
E
(beta gamma))
(f alpha #<<E
x
E
)
(#<<E
x
E
alpha (beta gamma) delta)
(f #<<E
x
E
(beta gamma) delta)
(f alpha #<<E
x
E
delta)
(f alpha (beta gamma) #<<E
x
E
)

; f: a string of two lines
("x
  y")
("x
  y" alpha)
(f "x
  y")
("x
  y" alpha (beta gamma))
(f "x
  y" (beta gamma))
(f alpha "x
  y")
("x
  y" alpha (beta gamma) delta)
(f "x
  y" (beta gamma) delta)
(f alpha "x
  y" delta)
(f alpha (beta gamma) "x
  y")
