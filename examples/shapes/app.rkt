; as many slots as stand here
(f)
(f alpha)
(f alpha (beta gamma))
(f alpha (beta gamma) delta)
(f alpha (beta gamma) delta (zeta eta theta))
[compute]
[compute (alpha beta)]
[compute (alpha beta) gamma]
[compute (alpha beta) gamma (delta (zeta eta))]
[compute (alpha beta) gamma (delta (zeta eta)) theta]
{send/apply}
{send/apply alpha}
{send/apply alpha (beta gamma)}
{send/apply alpha (beta gamma) delta}
{send/apply alpha (beta gamma) delta (zeta eta theta)}

; a comment at the line's end
(; c
f alpha (beta gamma))
{send/apply ; c
alpha (beta gamma)}
[compute (alpha beta) ; c
gamma]
(f alpha (beta gamma) ; c
delta)
{send/apply alpha (beta gamma) ; c
}

; a comment of its own line
[
; c
compute (alpha beta) gamma]
(f
; c
alpha (beta gamma))
{send/apply alpha
; c
(beta gamma) delta}
[compute (alpha beta) gamma
; c
(delta (zeta eta))]
(f alpha (beta gamma) delta
; c
)

; a block comment
{#| c |# send/apply alpha (beta gamma)}
[compute #| c |# (alpha beta) gamma]
(f alpha #| c |# (beta gamma))
{send/apply alpha (beta gamma) #| c |# delta}
[compute (alpha beta) #| c |#]

; a block comment of two lines
[#| c
 d |# compute (alpha beta) gamma]
(f #| c
 d |# alpha (beta gamma))
{send/apply alpha #| c
 d |# (beta gamma) delta}
[compute (alpha beta) gamma #| c
 d |# (delta (zeta eta))]
(f alpha (beta gamma) #| c
 d |#)

; a datum comment
{#;(x y) send/apply alpha (beta gamma)}
[compute #;(x y) (alpha beta) gamma]
(f alpha #;(x y) (beta gamma))
{send/apply alpha (beta gamma) #;(x y) delta}
[compute (alpha beta) gamma (delta (zeta eta)) #;(x y)]

; a keyword and its datum
(#:key f alpha (beta gamma))
{send/apply #:key alpha (beta gamma)}
[compute (alpha beta) #:key gamma (delta (zeta eta))]
(f alpha (beta gamma) #:key delta)
{send/apply alpha #:last}

; two keywords
{#:one #:two send/apply alpha (beta gamma)}
[compute #:one #:two (alpha beta) gamma]
(f alpha #:one #:two (beta gamma))
{send/apply alpha (beta gamma) #:one #:two delta}
[compute (alpha beta) gamma #:one #:two]

; a here string
(#<<E
x
E
alpha (beta gamma))
{send/apply #<<E
x
E
(beta gamma)}
[compute (alpha beta) #<<E
x
E
(delta (zeta eta))]
(f alpha (beta gamma) #<<E
x
E
)
{send/apply alpha (beta gamma) delta #<<E
x
E
}

; a string of two lines
["x
  y" (alpha beta) gamma]
(f "x
  y" (beta gamma))
{send/apply alpha "x
  y"}
[compute (alpha beta) gamma "x
  y"]
(f alpha "x
  y")

; a blank line
(

f alpha (beta gamma))
{send/apply

alpha (beta gamma)}
[compute (alpha beta)

gamma (delta (zeta eta))]
(f alpha (beta gamma)

delta)
{send/apply alpha (beta gamma)

}

; two comments
[; c
; d
compute (alpha beta) gamma]
(f ; c
; d
alpha (beta gamma))
{send/apply alpha ; c
; d
(beta gamma)}
[compute (alpha beta) gamma ; c
; d
(delta (zeta eta))]
(f alpha (beta gamma) delta ; c
; d
)

; dots
(f . alpha)
(f alpha . beta)
(compute (beta gamma) delta . (zeta eta theta))
(alpha . compute . beta)
(f . ; c
alpha)
(f ; c
. alpha)
(f #;x . #;y alpha)
(f alpha . #<<E
x
E
)
(f . "x
  y" #;z)
(f . ,@(beta gamma))

; rules that ask for more headers
(struct alpha)
(struct #:key alpha)
(module alpha)
(syntax-case (beta gamma))
(for/fold ([alpha 1]))
(body-3 alpha)
(body-3 alpha (beta gamma))
(clauses-3 [alpha] (beta gamma))
(bindings-3 ([alpha 1]) ([beta 2]))
(struct ; c
alpha)
(struct alpha ; c
)

; lists in lists
(f (g (h (i alpha beta) gamma) delta) zeta)
(compute (compute alpha beta) (compute gamma delta))
(f (when alpha beta) gamma)
(f alpha (cond [beta gamma]) delta)
(f '(alpha beta) `(gamma ,(f delta ,@(zeta eta))))
(f #(alpha beta) #s(gamma 1) #&(delta zeta))
(#:one #:two alpha (beta gamma))
