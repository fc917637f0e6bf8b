(require racket/list racket/string)
(compute alpha beta)
