; quote: nothing else
()
(quote)
(quote alpha)
(quote alpha (beta gamma))
(quote alpha (beta gamma) delta)

; quote: a comment at the line's end
(; c
)
(; c
quote)
(quote ; c
)
(; c
quote alpha)
(quote ; c
alpha)
(quote alpha ; c
)
(; c
quote alpha (beta gamma))
(quote ; c
alpha (beta gamma))
(quote alpha ; c
(beta gamma))
(quote alpha (beta gamma) ; c
)
(; c
quote alpha (beta gamma) delta)
(quote ; c
alpha (beta gamma) delta)
(quote alpha ; c
(beta gamma) delta)
(quote alpha (beta gamma) ; c
delta)
(quote alpha (beta gamma) delta ; c
)

; quote: a comment on a line of its own
(
; c
)
(
; c
quote)
(quote
; c
)
(
; c
quote alpha)
(quote
; c
alpha)
(quote alpha
; c
)
(
; c
quote alpha (beta gamma))
(quote
; c
alpha (beta gamma))
(quote alpha
; c
(beta gamma))
(quote alpha (beta gamma)
; c
)
(
; c
quote alpha (beta gamma) delta)
(quote
; c
alpha (beta gamma) delta)
(quote alpha
; c
(beta gamma) delta)
(quote alpha (beta gamma)
; c
delta)
(quote alpha (beta gamma) delta
; c
)

; quote: a block comment
(#| c |#)
(#| c |# quote)
(quote #| c |#)
(#| c |# quote alpha)
(quote #| c |# alpha)
(quote alpha #| c |#)
(#| c |# quote alpha (beta gamma))
(quote #| c |# alpha (beta gamma))
(quote alpha #| c |# (beta gamma))
(quote alpha (beta gamma) #| c |#)
(#| c |# quote alpha (beta gamma) delta)
(quote #| c |# alpha (beta gamma) delta)
(quote alpha #| c |# (beta gamma) delta)
(quote alpha (beta gamma) #| c |# delta)
(quote alpha (beta gamma) delta #| c |#)

; quote: a datum comment
(#;(x y))
(#;(x y) quote)
(quote #;(x y))
(#;(x y) quote alpha)
(quote #;(x y) alpha)
(quote alpha #;(x y))
(#;(x y) quote alpha (beta gamma))
(quote #;(x y) alpha (beta gamma))
(quote alpha #;(x y) (beta gamma))
(quote alpha (beta gamma) #;(x y))
(#;(x y) quote alpha (beta gamma) delta)
(quote #;(x y) alpha (beta gamma) delta)
(quote alpha #;(x y) (beta gamma) delta)
(quote alpha (beta gamma) #;(x y) delta)
(quote alpha (beta gamma) delta #;(x y))

; quote: a keyword
(#:key)
(#:key quote)
(quote #:key)
(#:key quote alpha)
(quote #:key alpha)
(quote alpha #:key)
(#:key quote alpha (beta gamma))
(quote #:key alpha (beta gamma))
(quote alpha #:key (beta gamma))
(quote alpha (beta gamma) #:key)
(#:key quote alpha (beta gamma) delta)
(quote #:key alpha (beta gamma) delta)
(quote alpha #:key (beta gamma) delta)
(quote alpha (beta gamma) #:key delta)
(quote alpha (beta gamma) delta #:key)

; quote: a dot
(quote . alpha)
(quote alpha . (beta gamma))
(quote alpha (beta gamma) . delta)
(quote . alpha . (beta gamma))
(quote . alpha . (beta gamma) delta)
(quote alpha . (beta gamma) . delta)

; quote: a here string
(#<<E
x
E
)
(#<<E
x
E
alpha)
(quote #<<E
x
E
)
(#<<E
x
E
alpha (beta gamma))
(quote #<<E
x
E
(beta gamma))
(quote alpha #<<E
x
E
)
(#<<E
x
E
alpha (beta gamma) delta)
(quote #<<E
x
E
(beta gamma) delta)
(quote alpha #<<E
x
E
delta)
(quote alpha (beta gamma) #<<E
x
E
)

; quote: a string of two lines
("x
  y")
("x
  y" alpha)
(quote "x
  y")
("x
  y" alpha (beta gamma))
(quote "x
  y" (beta gamma))
(quote alpha "x
  y")
("x
  y" alpha (beta gamma) delta)
(quote "x
  y" (beta gamma) delta)
(quote alpha "x
  y" delta)
(quote alpha (beta gamma) "x
  y")
