; cond: nothing else
()
(cond)
(cond [alpha beta])
(cond [alpha beta] [gamma])
(cond [alpha beta] [gamma] [else (delta zeta)])

; cond: a comment at the line's end
(; c
)
(; c
cond)
(cond ; c
)
(; c
cond [alpha beta])
(cond ; c
[alpha beta])
(cond [alpha beta] ; c
)
(; c
cond [alpha beta] [gamma])
(cond ; c
[alpha beta] [gamma])
(cond [alpha beta] ; c
[gamma])
(cond [alpha beta] [gamma] ; c
)
(; c
cond [alpha beta] [gamma] [else (delta zeta)])
(cond ; c
[alpha beta] [gamma] [else (delta zeta)])
(cond [alpha beta] ; c
[gamma] [else (delta zeta)])
(cond [alpha beta] [gamma] ; c
[else (delta zeta)])
(cond [alpha beta] [gamma] [else (delta zeta)] ; c
)

; cond: a comment on a line of its own
(
; c
)
(
; c
cond)
(cond
; c
)
(
; c
cond [alpha beta])
(cond
; c
[alpha beta])
(cond [alpha beta]
; c
)
(
; c
cond [alpha beta] [gamma])
(cond
; c
[alpha beta] [gamma])
(cond [alpha beta]
; c
[gamma])
(cond [alpha beta] [gamma]
; c
)
(
; c
cond [alpha beta] [gamma] [else (delta zeta)])
(cond
; c
[alpha beta] [gamma] [else (delta zeta)])
(cond [alpha beta]
; c
[gamma] [else (delta zeta)])
(cond [alpha beta] [gamma]
; c
[else (delta zeta)])
(cond [alpha beta] [gamma] [else (delta zeta)]
; c
)

; cond: a block comment
(#| c |#)
(#| c |# cond)
(cond #| c |#)
(#| c |# cond [alpha beta])
(cond #| c |# [alpha beta])
(cond [alpha beta] #| c |#)
(#| c |# cond [alpha beta] [gamma])
(cond #| c |# [alpha beta] [gamma])
(cond [alpha beta] #| c |# [gamma])
(cond [alpha beta] [gamma] #| c |#)
(#| c |# cond [alpha beta] [gamma] [else (delta zeta)])
(cond #| c |# [alpha beta] [gamma] [else (delta zeta)])
(cond [alpha beta] #| c |# [gamma] [else (delta zeta)])
(cond [alpha beta] [gamma] #| c |# [else (delta zeta)])
(cond [alpha beta] [gamma] [else (delta zeta)] #| c |#)

; cond: a datum comment
(#;(x y))
(#;(x y) cond)
(cond #;(x y))
(#;(x y) cond [alpha beta])
(cond #;(x y) [alpha beta])
(cond [alpha beta] #;(x y))
(#;(x y) cond [alpha beta] [gamma])
(cond #;(x y) [alpha beta] [gamma])
(cond [alpha beta] #;(x y) [gamma])
(cond [alpha beta] [gamma] #;(x y))
(#;(x y) cond [alpha beta] [gamma] [else (delta zeta)])
(cond #;(x y) [alpha beta] [gamma] [else (delta zeta)])
(cond [alpha beta] #;(x y) [gamma] [else (delta zeta)])
(cond [alpha beta] [gamma] #;(x y) [else (delta zeta)])
(cond [alpha beta] [gamma] [else (delta zeta)] #;(x y))

; cond: a keyword
(#:key)
(#:key cond)
(cond #:key)
(#:key cond [alpha beta])
(cond #:key [alpha beta])
(cond [alpha beta] #:key)
(#:key cond [alpha beta] [gamma])
(cond #:key [alpha beta] [gamma])
(cond [alpha beta] #:key [gamma])
(cond [alpha beta] [gamma] #:key)
(#:key cond [alpha beta] [gamma] [else (delta zeta)])
(cond #:key [alpha beta] [gamma] [else (delta zeta)])
(cond [alpha beta] #:key [gamma] [else (delta zeta)])
(cond [alpha beta] [gamma] #:key [else (delta zeta)])
(cond [alpha beta] [gamma] [else (delta zeta)] #:key)

; cond: a dot
(cond . [alpha beta])
(cond [alpha beta] . [gamma])
(cond [alpha beta] [gamma] . [else (delta zeta)])
(cond . [alpha beta] . [gamma])
(cond . [alpha beta] . [gamma] [else (delta zeta)])
(cond [alpha beta] . [gamma] . [else (delta zeta)])

; cond: a here string
(#<<E
x
E
)
(#<<E
x
E
[alpha beta])
(cond #<<E
x
E
)
(#<<E
x
E
[alpha beta] [gamma])
(cond #<<E
x
E
[gamma])
(cond [alpha beta] #<<E
x
E
)
(#<<E
x
E
[alpha beta] [gamma] [else (delta zeta)])
(cond #<<E
x
E
[gamma] [else (delta zeta)])
(cond [alpha beta] #<<E
x
E
[else (delta zeta)])
(cond [alpha beta] [gamma] #<<E
x
E
)

; cond: a string of two lines
("x
  y")
("x
  y" [alpha beta])
(cond "x
  y")
("x
  y" [alpha beta] [gamma])
(cond "x
  y" [gamma])
(cond [alpha beta] "x
  y")
("x
  y" [alpha beta] [gamma] [else (delta zeta)])
(cond "x
  y" [gamma] [else (delta zeta)])
(cond [alpha beta] "x
  y" [else (delta zeta)])
(cond [alpha beta] [gamma] "x
  y")

; match: nothing else
()
(match)
(match alpha)
(match alpha [beta gamma])
(match alpha [beta gamma] [else (delta zeta)])

; match: a comment at the line's end
(; c
)
(; c
match)
(match ; c
)
(; c
match alpha)
(match ; c
alpha)
(match alpha ; c
)
(; c
match alpha [beta gamma])
(match ; c
alpha [beta gamma])
(match alpha ; c
[beta gamma])
(match alpha [beta gamma] ; c
)
(; c
match alpha [beta gamma] [else (delta zeta)])
(match ; c
alpha [beta gamma] [else (delta zeta)])
(match alpha ; c
[beta gamma] [else (delta zeta)])
(match alpha [beta gamma] ; c
[else (delta zeta)])
(match alpha [beta gamma] [else (delta zeta)] ; c
)

; match: a comment on a line of its own
(
; c
)
(
; c
match)
(match
; c
)
(
; c
match alpha)
(match
; c
alpha)
(match alpha
; c
)
(
; c
match alpha [beta gamma])
(match
; c
alpha [beta gamma])
(match alpha
; c
[beta gamma])
(match alpha [beta gamma]
; c
)
(
; c
match alpha [beta gamma] [else (delta zeta)])
(match
; c
alpha [beta gamma] [else (delta zeta)])
(match alpha
; c
[beta gamma] [else (delta zeta)])
(match alpha [beta gamma]
; c
[else (delta zeta)])
(match alpha [beta gamma] [else (delta zeta)]
; c
)

; match: a block comment
(#| c |#)
(#| c |# match)
(match #| c |#)
(#| c |# match alpha)
(match #| c |# alpha)
(match alpha #| c |#)
(#| c |# match alpha [beta gamma])
(match #| c |# alpha [beta gamma])
(match alpha #| c |# [beta gamma])
(match alpha [beta gamma] #| c |#)
(#| c |# match alpha [beta gamma] [else (delta zeta)])
(match #| c |# alpha [beta gamma] [else (delta zeta)])
(match alpha #| c |# [beta gamma] [else (delta zeta)])
(match alpha [beta gamma] #| c |# [else (delta zeta)])
(match alpha [beta gamma] [else (delta zeta)] #| c |#)

; match: a datum comment
(#;(x y))
(#;(x y) match)
(match #;(x y))
(#;(x y) match alpha)
(match #;(x y) alpha)
(match alpha #;(x y))
(#;(x y) match alpha [beta gamma])
(match #;(x y) alpha [beta gamma])
(match alpha #;(x y) [beta gamma])
(match alpha [beta gamma] #;(x y))
(#;(x y) match alpha [beta gamma] [else (delta zeta)])
(match #;(x y) alpha [beta gamma] [else (delta zeta)])
(match alpha #;(x y) [beta gamma] [else (delta zeta)])
(match alpha [beta gamma] #;(x y) [else (delta zeta)])
(match alpha [beta gamma] [else (delta zeta)] #;(x y))

; match: a keyword
(#:key)
(#:key match)
(match #:key)
(#:key match alpha)
(match #:key alpha)
(match alpha #:key)
(#:key match alpha [beta gamma])
(match #:key alpha [beta gamma])
(match alpha #:key [beta gamma])
(match alpha [beta gamma] #:key)
(#:key match alpha [beta gamma] [else (delta zeta)])
(match #:key alpha [beta gamma] [else (delta zeta)])
(match alpha #:key [beta gamma] [else (delta zeta)])
(match alpha [beta gamma] #:key [else (delta zeta)])
(match alpha [beta gamma] [else (delta zeta)] #:key)

; match: a dot
(match . alpha)
(match alpha . [beta gamma])
(match alpha [beta gamma] . [else (delta zeta)])
(match . alpha . [beta gamma])
(match . alpha . [beta gamma] [else (delta zeta)])
(match alpha . [beta gamma] . [else (delta zeta)])

; match: a here string
(#<<E
x
E
)
(#<<E
x
E
alpha)
(match #<<E
x
E
)
(#<<E
x
E
alpha [beta gamma])
(match #<<E
x
E
[beta gamma])
(match alpha #<<E
x
E
)
(#<<E
x
E
alpha [beta gamma] [else (delta zeta)])
(match #<<E
x
E
[beta gamma] [else (delta zeta)])
(match alpha #<<E
x
E
[else (delta zeta)])
(match alpha [beta gamma] #<<E
x
E
)

; match: a string of two lines
("x
  y")
("x
  y" alpha)
(match "x
  y")
("x
  y" alpha [beta gamma])
(match "x
  y" [beta gamma])
(match alpha "x
  y")
("x
  y" alpha [beta gamma] [else (delta zeta)])
(match "x
  y" [beta gamma] [else (delta zeta)])
(match alpha "x
  y" [else (delta zeta)])
(match alpha [beta gamma] "x
  y")
