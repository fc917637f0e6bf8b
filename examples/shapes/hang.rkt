; as many slots as stand here
(if)
(if alpha)
(if alpha (beta gamma))
(if alpha (beta gamma) delta)
(if alpha (beta gamma) delta (zeta eta theta))
(and)
(and (alpha beta))
(and (alpha beta) gamma)
(and (alpha beta) gamma (delta (zeta eta)))
(and (alpha beta) gamma (delta (zeta eta)) theta)
[provide]
[provide alpha]
[provide alpha (beta gamma)]
[provide alpha (beta gamma) delta]
[provide alpha (beta gamma) delta (zeta eta theta)]

; a comment at the line's end
(; c
if alpha (beta gamma))
[provide ; c
alpha (beta gamma)]
(and (alpha beta) ; c
gamma)
(if alpha (beta gamma) ; c
delta)
[provide alpha (beta gamma) ; c
]

; a comment of its own line
(
; c
and (alpha beta) gamma)
(if
; c
alpha (beta gamma))
[provide alpha
; c
(beta gamma) delta]
(and (alpha beta) gamma
; c
(delta (zeta eta)))
(if alpha (beta gamma) delta
; c
)

; a block comment
[#| c |# provide alpha (beta gamma)]
(and #| c |# (alpha beta) gamma)
(if alpha #| c |# (beta gamma))
[provide alpha (beta gamma) #| c |# delta]
(and (alpha beta) #| c |#)

; a block comment of two lines
(#| c
 d |# and (alpha beta) gamma)
(if #| c
 d |# alpha (beta gamma))
[provide alpha #| c
 d |# (beta gamma) delta]
(and (alpha beta) gamma #| c
 d |# (delta (zeta eta)))
(if alpha (beta gamma) #| c
 d |#)

; a datum comment
[#;(x y) provide alpha (beta gamma)]
(and #;(x y) (alpha beta) gamma)
(if alpha #;(x y) (beta gamma))
[provide alpha (beta gamma) #;(x y) delta]
(and (alpha beta) gamma (delta (zeta eta)) #;(x y))

; a keyword and its datum
(#:key if alpha (beta gamma))
[provide #:key alpha (beta gamma)]
(and (alpha beta) #:key gamma (delta (zeta eta)))
(if alpha (beta gamma) #:key delta)
[provide alpha #:last]

; two keywords
[#:one #:two provide alpha (beta gamma)]
(and #:one #:two (alpha beta) gamma)
(if alpha #:one #:two (beta gamma))
[provide alpha (beta gamma) #:one #:two delta]
(and (alpha beta) gamma #:one #:two)

; a here string
(#<<E
x
E
alpha (beta gamma))
[provide #<<E
x
E
(beta gamma)]
(and (alpha beta) #<<E
x
E
(delta (zeta eta)))
(if alpha (beta gamma) #<<E
x
E
)
[provide alpha (beta gamma) delta #<<E
x
E
]

; a string of two lines
("x
  y" (alpha beta) gamma)
(if "x
  y" (beta gamma))
[provide alpha "x
  y"]
(and (alpha beta) gamma "x
  y")
(if alpha "x
  y")

; a blank line
(

if alpha (beta gamma))
[provide

alpha (beta gamma)]
(and (alpha beta)

gamma (delta (zeta eta)))
(if alpha (beta gamma)

delta)
[provide alpha (beta gamma)

]

; two comments
(; c
; d
and (alpha beta) gamma)
(if ; c
; d
alpha (beta gamma))
[provide alpha ; c
; d
(beta gamma)]
(and (alpha beta) gamma ; c
; d
(delta (zeta eta)))
(if alpha (beta gamma) delta ; c
; d
)

; dots
(or . alpha)
(or alpha . beta)
(if (beta gamma) delta . (zeta eta theta))
(alpha . or . beta)
(and . ; c
alpha)
(and ; c
. alpha)
(if alpha . #<<E
x
E
)
(if . "x
  y" #;z)

; lists in lists
(if (and alpha beta) (or gamma delta) (if zeta eta theta))
(if (when alpha beta) gamma delta)
(and alpha (let ([x 1]) beta) gamma)
(hang-own alpha (beta gamma) delta)
(hang-own (hang-own alpha beta) ; c
(hang-own gamma delta))
(require alpha (for-syntax beta gamma) (only-in delta zeta eta))
