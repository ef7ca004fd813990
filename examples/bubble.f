C     BUBBLE SORT, WHICH ENDS AFTER A PASS THAT EXCHANGES NOTHING.
      PROGRAM BUBBLE
      PARAMETER (N = 10)
      INTEGER A(N)
      LOGICAL SORTED
      READ *, A
      NPASS = 0
      DO 20 K = N - 1, 1, -1
      SORTED = .TRUE.
      NPASS = NPASS + 1
      DO 10 I = 1, K
      IF (A(I) .GT. A(I+1)) THEN
         KEEP = A(I)
         A(I) = A(I+1)
         A(I+1) = KEEP
         SORTED = .FALSE.
      END IF
   10 CONTINUE
      PRINT *, A, SORTED
      IF (SORTED) GO TO 30
   20 CONTINUE
   30 PRINT *, 'PASSES:', NPASS
      END
*DATA
12 -7 40 3
3 25 -19 8 60 31
