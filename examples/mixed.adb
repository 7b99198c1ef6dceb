procedure Mixed (X : in Integer; Room : out Boolean) is
   type Count is range 0 .. 100;
   Used : Count := 0;
begin
   Used := Used + Count (X);
   Room := Used < X;
end Mixed;
