C     THE LONGEST COMMON SUBSEQUENCE OF TWO LISTS OF NUMBERS: THE TABLE
C     OF LENGTHS, AND THE WAY BACK THROUGH IT.
      PROGRAM COMMN
      PARAMETER (MOST = 20)
      INTEGER A(MOST), B(MOST), LONG(0:MOST,0:MOST)
      INTEGER SUB(MOST), ATA(MOST), ATB(MOST)
      LOGICAL RISES
      READ *, N, M
      IF (N .LT. 1 .OR. N .GT. MOST .OR. M .LT. 1 .OR. M .GT. MOST) THEN
         PRINT *, 'TOO MANY NUMBERS, OR NONE:', N, M
         STOP
      END IF
      READ *, (A(I), I = 1, N)
      READ *, (B(J), J = 1, M)
C
C     LONG(I,J) IS THE LENGTH FOR THE FIRST I OF A AND THE FIRST J OF B.
C
      DO 10 I = 0, N
   10 LONG(I,0) = 0
      DO 20 J = 0, M
   20 LONG(0,J) = 0
      DO 40 I = 1, N
      DO 30 J = 1, M
      IF (A(I) .EQ. B(J)) THEN
         LONG(I,J) = LONG(I-1,J-1) + 1
      ELSE
         LONG(I,J) = MAX(LONG(I-1,J), LONG(I,J-1))
      END IF
   30 CONTINUE
   40 CONTINUE
      DO 50 I = 1, N
   50 PRINT *, (LONG(I,J), J = 1, M)
C
C     THE WAY BACK: IN EACH TURN A STEP UP, A STEP LEFT, OR ONE OF BOTH.
C
      LEFT = LONG(N,M)
      I = N
      J = M
      DO 60 K = 1, N + M
      IF (I .EQ. 0 .OR. J .EQ. 0) GO TO 70
      IF (A(I) .EQ. B(J)) THEN
         SUB(LEFT) = A(I)
         ATA(LEFT) = I
         ATB(LEFT) = J
         LEFT = LEFT - 1
         I = I - 1
         J = J - 1
      ELSE IF (LONG(I-1,J) .GE. LONG(I,J-1)) THEN
         I = I - 1
      ELSE
         J = J - 1
      END IF
   60 CONTINUE
   70 NLONG = LONG(N,M)
      PRINT *, 'LENGTH', NLONG
      PRINT *, 'NUMBERS', (SUB(K), K = 1, NLONG)
      PRINT *, 'IN A AT', (ATA(K), K = 1, NLONG)
      PRINT *, 'IN B AT', (ATB(K), K = 1, NLONG)
C
C     BOTH LISTS OF PLACES RISE, AND THE SAME NUMBERS STAND THERE.
C
      RISES = .TRUE.
      DO 80 K = 2, NLONG
   80 RISES = RISES .AND. ATA(K-1) .LT. ATA(K)
     1              .AND. ATB(K-1) .LT. ATB(K)
      DO 90 K = 1, NLONG
   90 RISES = RISES .AND. A(ATA(K)) .EQ. B(ATB(K))
      PRINT *, 'RIGHT', RISES
      END
*DATA
12 10
3 1 4 1 5 9 2 6 5 3 5 8
2 7 1 8 2 8 1 5 3 5
