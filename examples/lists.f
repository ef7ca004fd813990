C     LISTS OF NUMBERS, EACH WITH ITS LENGTH N BEFORE IT: SUM, LEAST AND
C     GREATEST, RUNNING SUMS, HOW OFTEN EACH REMAINDER OF 5 COMES, AND
C     THE LIST IN ORDER, BY INSERTION.  A LENGTH OF 0 ENDS THE INPUT.
      PROGRAM LISTS
      PARAMETER (MOST = 16, MANY = 10)
      INTEGER V(MOST), RUN(0:MOST), OFTEN(0:4), BACK(MOST)
      NALL = 0
      NSUM = 0
      DO 100 LIST = 1, MANY
      READ *, N
      IF (N .EQ. 0) GO TO 110
      IF (N .LT. 0 .OR. N .GT. MOST) THEN
         PRINT *, 'A LENGTH OUT OF RANGE:', N
         STOP
      END IF
      READ *, (V(I), I = 1, N)
      PRINT *, 'LIST', LIST, ' LENGTH', N
C
C     ONE WALK OVER THE LIST, AND SUMS FROM THE FRONT.
C
      LEAST = V(1)
      MUCH = V(1)
      DO 10 I = 2, N
      LEAST = MIN(LEAST, V(I))
   10 MUCH = MAX(MUCH, V(I))
      RUN(0) = 0
      DO 20 I = 1, N
   20 RUN(I) = RUN(I-1) + V(I)
      PRINT *, 'LEAST', LEAST, ' GREATEST', MUCH, ' SUM', RUN(N)
      PRINT *, 'SUMS', (RUN(I), I = 1, N)
C
C     REMAINDERS, WHERE A NEGATIVE NUMBER COUNTS AS THE NEXT ABOVE.
C
      DO 30 K = 0, 4
   30 OFTEN(K) = 0
      DO 40 I = 1, N
      K = MOD(MOD(V(I), 5) + 5, 5)
   40 OFTEN(K) = OFTEN(K) + 1
      PRINT *, 'REMAINDERS', OFTEN
C
C     THE LIST FROM BEHIND, AND IN ORDER.
C
      DO 50 I = 1, N
   50 BACK(N+1-I) = V(I)
      PRINT *, 'BACK', (BACK(I), I = 1, N)
      DO 80 I = 2, N
      IT = V(I)
      DO 60 J = I - 1, 1, -1
      IF (V(J) .LE. IT) GO TO 70
      V(J+1) = V(J)
   60 CONTINUE
   70 V(J+1) = IT
   80 CONTINUE
      PRINT *, 'ORDER', (V(I), I = 1, N)
      NALL = NALL + N
      NSUM = NSUM + RUN(N)
  100 CONTINUE
      PRINT *, 'TOO MANY LISTS'
      STOP
  110 PRINT *, 'ALL', NALL, ' SUM', NSUM, ' MEAN', NSUM / MAX(NALL, 1)
      END
*DATA
5
3 -1 4 1 -5
1
42
8
9 2 6 5
3 5 8 9
0
