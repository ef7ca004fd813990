C     A MATRIX IS TRANSPOSED, AND ITS COLUMNS ARE SUMMED.  ALL LOOPS END ON
C     END DO, AND ALL NAMES HAVE A TYPE.
      PROGRAM TURN
      IMPLICIT NONE
      INTEGER N
      PARAMETER (N = 4)
      INTEGER A(N,N), B(N,N), SUMS(N), I, J
      READ *, ((A(I,J), J = 1, N), I = 1, N)
      DO I = 1, N
         DO J = 1, N
            B(J,I) = A(I,J)
         END DO
      END DO
      DO 10 J = 1, N
         SUMS(J) = 0
         DO I = 1, N
            SUMS(J) = SUMS(J) + A(I,J)
         END DO
   10 END DO
      DO I = 1, N
         PRINT *, (B(I,J), J = 1, N), SUMS(I)
      END DO
C
C     COLUMNS WITH A SUM OF 20 OR LESS ARE PASSED OVER: THE LABEL STANDS AT
C     THE END OF THE LOOP.
C
      DO J = 1, N
         IF (SUMS(J) .LE. 20) GO TO 20
         PRINT *, 'COLUMN', J
   20 END DO
      END
*DATA
1 2 3 4
8 7 6 5
9 10 11 12
0 0 4 0
