C     TRUTH TABLE OF THE LOGICAL OPERATORS, AND BOTH LAWS OF DE MORGAN.
      PROGRAM TRUTH
      LOGICAL VALUE(2), A, B, LAWS
      READ *, VALUE
      LAWS = .TRUE.
      PRINT *, 'A B AND OR EQV NEQV NOT'
      DO 10 I = 1, 2
      DO 10 J = 1, 2
      A = VALUE(I)
      B = VALUE(J)
      PRINT *, A, B, A .AND. B, A .OR. B, A .EQV. B, A .NEQV. B, .NOT. A
      LAWS = LAWS .AND. (.NOT. (A .AND. B) .EQV. .NOT. A .OR. .NOT. B)
      LAWS = LAWS .AND. (.NOT. (A .OR. B) .EQV. .NOT. A .AND. .NOT. B)
   10 CONTINUE
      PRINT *, 'BOTH LAWS HOLD:', LAWS
      END
*DATA
.TRUE. f
