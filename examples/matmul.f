C     PRODUCT OF TWO MATRICES.  THE INPUT HAS THE ROWS OF A AND THEN
C     THOSE OF B.
      PROGRAM MATMUL
      INTEGER A(3,4), B(4,2), C(3,2)
      READ *, ((A(I,K), K = 1, 4), I = 1, 3)
      READ *, ((B(K,J), J = 1, 2), K = 1, 4)
      DO 10 I = 1, 3
      DO 10 J = 1, 2
      DO 10 K = 1, 4
   10 C(I,J) = C(I,J) + A(I,K) * B(K,J)
      DO 20 I = 1, 3
   20 PRINT *, (C(I,J), J = 1, 2)
      END
*DATA
1 2 3 4
5 6 7 8
-1 0 1 -2
1, 0
0, 1
2, -1
3, 5
