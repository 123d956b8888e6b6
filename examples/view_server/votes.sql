-- A million made-up votes: 20 for each of 50,000 articles.
PRAGMA synchronous = OFF;
WITH RECURSIVE numbers (n) AS (SELECT 0 UNION ALL SELECT n + 1 FROM numbers WHERE n < 999999)
INSERT INTO votes SELECT printf('article:%012d', n / 20), n * 7919 % 1000003, 1 + n % 5 FROM numbers;
