; define: nothing else
()
(define)
(define (alpha beta))
(define (alpha beta) (gamma delta))
(define (alpha beta) (gamma delta) zeta)

; define: a comment at the line's end
(; c
)
(; c
define)
(define ; c
)
(; c
define (alpha beta))
(define ; c
(alpha beta))
(define (alpha beta) ; c
)
(; c
define (alpha beta) (gamma delta))
(define ; c
(alpha beta) (gamma delta))
(define (alpha beta) ; c
(gamma delta))
(define (alpha beta) (gamma delta) ; c
)
(; c
define (alpha beta) (gamma delta) zeta)
(define ; c
(alpha beta) (gamma delta) zeta)
(define (alpha beta) ; c
(gamma delta) zeta)
(define (alpha beta) (gamma delta) ; c
zeta)
(define (alpha beta) (gamma delta) zeta ; c
)

; define: a comment on a line of its own
(
; c
)
(
; c
define)
(define
; c
)
(
; c
define (alpha beta))
(define
; c
(alpha beta))
(define (alpha beta)
; c
)
(
; c
define (alpha beta) (gamma delta))
(define
; c
(alpha beta) (gamma delta))
(define (alpha beta)
; c
(gamma delta))
(define (alpha beta) (gamma delta)
; c
)
(
; c
define (alpha beta) (gamma delta) zeta)
(define
; c
(alpha beta) (gamma delta) zeta)
(define (alpha beta)
; c
(gamma delta) zeta)
(define (alpha beta) (gamma delta)
; c
zeta)
(define (alpha beta) (gamma delta) zeta
; c
)

; define: a block comment
(#| c |#)
(#| c |# define)
(define #| c |#)
(#| c |# define (alpha beta))
(define #| c |# (alpha beta))
(define (alpha beta) #| c |#)
(#| c |# define (alpha beta) (gamma delta))
(define #| c |# (alpha beta) (gamma delta))
(define (alpha beta) #| c |# (gamma delta))
(define (alpha beta) (gamma delta) #| c |#)
(#| c |# define (alpha beta) (gamma delta) zeta)
(define #| c |# (alpha beta) (gamma delta) zeta)
(define (alpha beta) #| c |# (gamma delta) zeta)
(define (alpha beta) (gamma delta) #| c |# zeta)
(define (alpha beta) (gamma delta) zeta #| c |#)

; define: a datum comment
(#;(x y))
(#;(x y) define)
(define #;(x y))
(#;(x y) define (alpha beta))
(define #;(x y) (alpha beta))
(define (alpha beta) #;(x y))
(#;(x y) define (alpha beta) (gamma delta))
(define #;(x y) (alpha beta) (gamma delta))
(define (alpha beta) #;(x y) (gamma delta))
(define (alpha beta) (gamma delta) #;(x y))
(#;(x y) define (alpha beta) (gamma delta) zeta)
(define #;(x y) (alpha beta) (gamma delta) zeta)
(define (alpha beta) #;(x y) (gamma delta) zeta)
(define (alpha beta) (gamma delta) #;(x y) zeta)
(define (alpha beta) (gamma delta) zeta #;(x y))

; define: a keyword
(#:key)
(#:key define)
(define #:key)
(#:key define (alpha beta))
(define #:key (alpha beta))
(define (alpha beta) #:key)
(#:key define (alpha beta) (gamma delta))
(define #:key (alpha beta) (gamma delta))
(define (alpha beta) #:key (gamma delta))
(define (alpha beta) (gamma delta) #:key)
(#:key define (alpha beta) (gamma delta) zeta)
(define #:key (alpha beta) (gamma delta) zeta)
(define (alpha beta) #:key (gamma delta) zeta)
(define (alpha beta) (gamma delta) #:key zeta)
(define (alpha beta) (gamma delta) zeta #:key)

; define: a dot
(define . (alpha beta))
(define (alpha beta) . (gamma delta))
(define (alpha beta) (gamma delta) . zeta)
(define . (alpha beta) . (gamma delta))
(define . (alpha beta) . (gamma delta) zeta)
(define (alpha beta) . (gamma delta) . zeta)

; define: a here string
(#<<E
x
E
)
(#<<E
x
E
(alpha beta))
(define #<<E
x
E
)
(#<<E
x
E
(alpha beta) (gamma delta))
(define #<<E
x
E
(gamma delta))
(define (alpha beta) #<<E
x
E
)
(#<<E
x
E
(alpha beta) (gamma delta) zeta)
(define #<<E
x
E
(gamma delta) zeta)
(define (alpha beta) #<<E
x
E
zeta)
(define (alpha beta) (gamma delta) #<<E
x
E
)

; define: a string of two lines
("x
  y")
("x
  y" (alpha beta))
(define "x
  y")
("x
  y" (alpha beta) (gamma delta))
(define "x
  y" (gamma delta))
(define (alpha beta) "x
  y")
("x
  y" (alpha beta) (gamma delta) zeta)
(define "x
  y" (gamma delta) zeta)
(define (alpha beta) "x
  y" zeta)
(define (alpha beta) (gamma delta) "x
  y")

; struct: nothing else
()
(struct)
(struct alpha)
(struct alpha (beta gamma))
(struct alpha (beta gamma) delta)

; struct: a comment at the line's end
(; c
)
(; c
struct)
(struct ; c
)
(; c
struct alpha)
(struct ; c
alpha)
(struct alpha ; c
)
(; c
struct alpha (beta gamma))
(struct ; c
alpha (beta gamma))
(struct alpha ; c
(beta gamma))
(struct alpha (beta gamma) ; c
)
(; c
struct alpha (beta gamma) delta)
(struct ; c
alpha (beta gamma) delta)
(struct alpha ; c
(beta gamma) delta)
(struct alpha (beta gamma) ; c
delta)
(struct alpha (beta gamma) delta ; c
)

; struct: a comment on a line of its own
(
; c
)
(
; c
struct)
(struct
; c
)
(
; c
struct alpha)
(struct
; c
alpha)
(struct alpha
; c
)
(
; c
struct alpha (beta gamma))
(struct
; c
alpha (beta gamma))
(struct alpha
; c
(beta gamma))
(struct alpha (beta gamma)
; c
)
(
; c
struct alpha (beta gamma) delta)
(struct
; c
alpha (beta gamma) delta)
(struct alpha
; c
(beta gamma) delta)
(struct alpha (beta gamma)
; c
delta)
(struct alpha (beta gamma) delta
; c
)

; struct: a block comment
(#| c |#)
(#| c |# struct)
(struct #| c |#)
(#| c |# struct alpha)
(struct #| c |# alpha)
(struct alpha #| c |#)
(#| c |# struct alpha (beta gamma))
(struct #| c |# alpha (beta gamma))
(struct alpha #| c |# (beta gamma))
(struct alpha (beta gamma) #| c |#)
(#| c |# struct alpha (beta gamma) delta)
(struct #| c |# alpha (beta gamma) delta)
(struct alpha #| c |# (beta gamma) delta)
(struct alpha (beta gamma) #| c |# delta)
(struct alpha (beta gamma) delta #| c |#)

; struct: a datum comment
(#;(x y))
(#;(x y) struct)
(struct #;(x y))
(#;(x y) struct alpha)
(struct #;(x y) alpha)
(struct alpha #;(x y))
(#;(x y) struct alpha (beta gamma))
(struct #;(x y) alpha (beta gamma))
(struct alpha #;(x y) (beta gamma))
(struct alpha (beta gamma) #;(x y))
(#;(x y) struct alpha (beta gamma) delta)
(struct #;(x y) alpha (beta gamma) delta)
(struct alpha #;(x y) (beta gamma) delta)
(struct alpha (beta gamma) #;(x y) delta)
(struct alpha (beta gamma) delta #;(x y))

; struct: a keyword
(#:key)
(#:key struct)
(struct #:key)
(#:key struct alpha)
(struct #:key alpha)
(struct alpha #:key)
(#:key struct alpha (beta gamma))
(struct #:key alpha (beta gamma))
(struct alpha #:key (beta gamma))
(struct alpha (beta gamma) #:key)
(#:key struct alpha (beta gamma) delta)
(struct #:key alpha (beta gamma) delta)
(struct alpha #:key (beta gamma) delta)
(struct alpha (beta gamma) #:key delta)
(struct alpha (beta gamma) delta #:key)

; struct: a dot
(struct . alpha)
(struct alpha . (beta gamma))
(struct alpha (beta gamma) . delta)
(struct . alpha . (beta gamma))
(struct . alpha . (beta gamma) delta)
(struct alpha . (beta gamma) . delta)

; struct: a here string
(#<<E
x
E
)
(#<<E
x
E
alpha)
(struct #<<E
x
E
)
(#<<E
x
E
alpha (beta gamma))
(struct #<<E
x
E
(beta gamma))
(struct alpha #<<E
x
E
)
(#<<E
x
E
alpha (beta gamma) delta)
(struct #<<E
x
E
(beta gamma) delta)
(struct alpha #<<E
x
E
delta)
(struct alpha (beta gamma) #<<E
x
E
)

; struct: a string of two lines
("x
  y")
("x
  y" alpha)
(struct "x
  y")
("x
  y" alpha (beta gamma))
(struct "x
  y" (beta gamma))
(struct alpha "x
  y")
("x
  y" alpha (beta gamma) delta)
(struct "x
  y" (beta gamma) delta)
(struct alpha "x
  y" delta)
(struct alpha (beta gamma) "x
  y")
