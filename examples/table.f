C     A TABLE OF PRODUCTS.  HEADINGS ARE TEXT CONSTANTS, AND ROWS ARE
C     IMPLIED DO LISTS.
      PROGRAM TABLE
      PARAMETER (N = 6)
      INTEGER T(N,N)
      DO 10 J = 1, N
      DO 10 I = 1, N
   10 T(I,J) = I * J
      PRINT *, 'PRODUCTS UP TO', N
      PRINT *, 'TIMES', (J, J = 1, N)
      DO 20 I = 1, N
   20 PRINT *, I, ' GIVES', (T(I,J), J = 1, N)
      PRINT *
      PRINT *, 'THE TRIANGLE ON AND ABOVE THE DIAGONAL, BY COLUMNS:'
      PRINT *, ((T(I,J), I = 1, J), J = 1, N)
      PRINT *, 'THE DIAGONAL''S ODD ROWS:', ('  ', T(I,I), I = 1, N, 2)
      END
