%:include <stdio.h>
%:define JOIN(a, b) a%:%:b
int main(void)
<%
    int a<:3:> = <% 1, 2, 3 %>, JOIN(le, ft) = 7;
    char *text = "<: <% %> :> %:";
    printf("%s %d %d\n", text, a<:1:> % 2, left%2);
    if (a<:a<:0:>:>>1)
    <%
        puts("<%");
    %>
    return a<:2:>;
%>
/* writes
<: <% %> :> %: 0 1
<%
status 3 */
