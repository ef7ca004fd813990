C     SOLVES A*X = B MODULO A PRIME BY ELIMINATION WITH A SEARCH FOR THE
C     PIVOT, AND MULTIPLIES BACK.  THE INVERSE OF A PIVOT IS ITS POWER
C     TO P - 2.
      PROGRAM MODULO
      INTEGER P
      PARAMETER (N = 5, P = 97)
      INTEGER A(N,N+1), S(N,N+1), X(N), R(N)
C
C     EACH ROW OF THE INPUT HAS A ROW OF A AND A NUMBER OF B.  S KEEPS
C     WHAT WAS READ.
C
      READ *, ((A(I,J), J = 1, N + 1), I = 1, N)
      DO J = 1, N + 1
         DO I = 1, N
            A(I,J) = MOD(MOD(A(I,J), P) + P, P)
            S(I,J) = A(I,J)
         END DO
      END DO
C
C     ELIMINATION, COLUMN BY COLUMN.
C
      DO 100 K = 1, N
         DO I = K, N
            IF (A(I,K) .NE. 0) GO TO 30
         END DO
         PRINT *, 'NO PIVOT IN COLUMN', K
         STOP
   30    IROW = I
         IF (IROW .NE. K) THEN
            PRINT *, 'ROWS CHANGE PLACES:', K, IROW
            DO J = 1, N + 1
               IT = A(K,J)
               A(K,J) = A(IROW,J)
               A(IROW,J) = IT
            END DO
         END IF
C
C     THE INVERSE OF THE PIVOT, BY SQUARES AND THE BITS OF P - 2.
C
         INV = 1
         ISQ = A(K,K)
         IBITS = P - 2
         DO L = 1, 7
            IF (MOD(IBITS, 2) .EQ. 1) INV = MOD(INV * ISQ, P)
            ISQ = MOD(ISQ * ISQ, P)
            IBITS = IBITS / 2
         END DO
         PRINT *, 'PIVOT', A(K,K), ' INVERSE', INV
         DO J = K, N + 1
            A(K,J) = MOD(A(K,J) * INV, P)
         END DO
C
C     NO OTHER ROW KEEPS A NUMBER IN THIS COLUMN.
C
         DO 80 I = 1, N
            IF (I .EQ. K) GO TO 80
            IFACT = A(I,K)
            DO J = K, N + 1
               A(I,J) = MOD(A(I,J) + (P - IFACT) * A(K,J), P)
            END DO
   80    END DO
  100 END DO
C
C     THE SOLUTION, AND WHAT A*X LACKS OF B.
C
      DO I = 1, N
         X(I) = A(I,N+1)
      END DO
      PRINT *, 'X', X
      DO I = 1, N
         R(I) = S(I,N+1)
         DO J = 1, N
            R(I) = MOD(R(I) + (P - S(I,J)) * X(J), P)
         END DO
      END DO
      PRINT *, 'REST', R
      END
*DATA
0 3 1 4 1 5
9 2 6 5 3 5
8 9 7 9 3 2
3 8 4 6 2 6
-4 3 3 8 3 2
