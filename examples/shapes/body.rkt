; as many slots as stand here
(begin)
(begin alpha)
(begin alpha (beta gamma))
(define)
(define (alpha beta))
(define (alpha beta) (gamma delta))
(define (alpha beta) (gamma delta) zeta)
(when)
(when alpha)
(when alpha (beta gamma))
(when alpha (beta gamma) delta)
[module]
[module alpha]
[module alpha (beta gamma)]
[module alpha (beta gamma) delta]
[module alpha (beta gamma) delta (zeta eta theta)]
(struct)
(struct alpha)
(struct alpha (beta gamma))
(struct alpha (beta gamma) delta)
(struct alpha (beta gamma) delta (zeta eta theta))
(body-3)
(body-3 (alpha beta))
(body-3 (alpha beta) (gamma delta))
(body-3 (alpha beta) (gamma delta) zeta)
(body-3 (alpha beta) (gamma delta) zeta (eta (theta iota)))
(body-3 (alpha beta) (gamma delta) zeta (eta (theta iota)) kappa)
(body-0)
(body-0 (alpha beta))
(body-0 (alpha beta) (gamma delta))

; a comment at the line's end
(; c
begin alpha)
[module ; c
alpha (beta gamma) delta]
(struct alpha (beta gamma) ; c
delta)
(body-0 (alpha beta) ; c
(gamma delta))
(define (alpha beta) (gamma delta) ; c
)

; a comment of its own line
(
; c
define (alpha beta) (gamma delta))
(struct alpha
; c
(beta gamma) delta)
(body-3 (alpha beta) (gamma delta) zeta
; c
(eta (theta iota)) kappa)
(begin alpha
; c
(beta gamma))
(when alpha (beta gamma) delta
; c
)

; a block comment
(#| c |# when alpha (beta gamma))
(body-3 (alpha beta) (gamma delta) #| c |# zeta (eta (theta iota)))
(body-0 #| c |# (alpha beta))
(define (alpha beta) (gamma delta) #| c |# zeta)
[module alpha (beta gamma) #| c |#]

; a block comment of two lines
[#| c
 d |# module alpha (beta gamma) delta]
(define #| c
 d |# (alpha beta) (gamma delta))
(begin #| c
 d |# alpha (beta gamma))
(when alpha (beta gamma) #| c
 d |# delta)
(struct alpha (beta gamma) delta #| c
 d |#)

; a datum comment
(#;(x y) struct alpha (beta gamma) delta)
(when #;(x y) alpha (beta gamma))
(define (alpha beta) #;(x y) (gamma delta))
[module alpha (beta gamma) delta #;(x y) (zeta eta theta)]
(body-3 (alpha beta) (gamma delta) zeta (eta (theta iota)) kappa #;(x y))

; a keyword and its datum
(#:key body-3 (alpha beta) (gamma delta) zeta (eta (theta iota)))
(struct alpha #:key (beta gamma) delta)
(when alpha #:key (beta gamma) delta)
(struct alpha (beta gamma) delta #:key (zeta eta theta))
(body-0 (alpha beta) #:last)

; two keywords
(#:one #:two body-0 (alpha beta))
(body-3 #:one #:two (alpha beta) (gamma delta) zeta (eta (theta iota)))
[module alpha (beta gamma) #:one #:two delta]
(body-3 (alpha beta) (gamma delta) zeta (eta (theta iota)) #:one #:two kappa)
(begin alpha #:one #:two)

; a here string
(#<<E
x
E
(alpha beta) (gamma delta))
(define #<<E
x
E
(gamma delta))
(body-3 (alpha beta) (gamma delta) zeta #<<E
x
E
kappa)
(begin alpha #<<E
x
E
)
(when alpha (beta gamma) delta #<<E
x
E
)

; a string of two lines
("x
  y" alpha (beta gamma))
(when "x
  y" (beta gamma))
(body-0 "x
  y")
(define (alpha beta) (gamma delta) "x
  y")
[module alpha (beta gamma) "x
  y"]

; a blank line
[

module alpha (beta gamma) delta]
[module alpha

(beta gamma) delta]
(begin

alpha (beta gamma))
(when alpha (beta gamma)

delta)
(struct alpha (beta gamma) delta

)

; two comments
(; c
; d
struct alpha (beta gamma) delta)
(body-3 (alpha beta) ; c
; d
(gamma delta) zeta (eta (theta iota)))
(define (alpha beta) ; c
; d
(gamma delta))
[module alpha (beta gamma) delta ; c
; d
(zeta eta theta)]
(body-3 (alpha beta) (gamma delta) zeta (eta (theta iota)) kappa ; c
; d
)

; dots
(begin . alpha)
(define . alpha)
(define (alpha . beta) . gamma)
(when alpha . (beta gamma))
(alpha . define . beta)
(struct alpha . (beta gamma))
(struct alpha (beta) . gamma)
(body-3 alpha beta . gamma)
(define alpha . ; c
beta)
(when alpha ; c
. beta)

; lists in lists
(define (alpha) (define (beta) (gamma delta)))
(define (alpha) (when beta gamma))
(define (alpha) (lambda (beta) (gamma delta zeta)))
(when (begin alpha) (begin beta gamma))
(lambda (alpha beta) (lambda (gamma) delta zeta))
(module alpha racket (define (beta) gamma) (define delta 1))
(struct alpha (beta gamma) #:transparent #:mutable)
(struct alpha beta (gamma delta) #:transparent)
(struct alpha (beta) #:property gamma (lambda (x) delta))
