procedure Same (X : in Integer; Y : in Integer) is
begin
   pragma Assert (X = Y);
   pragma Assert (X = Y);
end Same;
