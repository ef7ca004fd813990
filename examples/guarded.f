C     GUARDED DIVISION.  WHERE THE DIVISOR IS 0 THE QUOTIENT STAYS 0.
      INTEGER A(5), B(5), C(5)
      READ *, B, C
      DO 10 I = 1, 5
      IF (B(I) .NE. 0) A(I) = C(I) / B(I)
   10 CONTINUE
      PRINT *, A
      END
*DATA
2 0 -3 0 5
9 9 9 9 9
