C     PREFIX SUMS.  S(I) IS THE SUM OF THE FIRST I NUMBERS, SO THE LOOP
C     CARRIES A VALUE FROM EACH TURN TO THE NEXT.
      PROGRAM PREFIX
      PARAMETER (N = 10)
      INTEGER A(N), S(0:N)
      DO 10 I = 1, N
   10 A(I) = I * I * (-1) ** I
      S(0) = 0
      DO 20 I = 1, N
   20 S(I) = S(I-1) + A(I)
      PRINT *, A
      PRINT *, S
      PRINT *, 'FROM THE FOURTH TO THE SEVENTH:', S(7) - S(3)
      END
