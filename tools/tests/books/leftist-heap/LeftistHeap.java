import java.util.HashSet;
import java.util.Set;

// LeftistHeap class
//
// CONSTRUCTION: with a negative infinity sentinel
//
// ******************PUBLIC OPERATIONS*********************
// void insert( x )       --> Insert x
// Comparable deleteMin( )--> Return and remove smallest item
public class LeftistHeap<AnyType extends Comparable<? super AnyType>>
{
    public LeftistHeap( )
    {
        root = null;
    }

    public void merge( LeftistHeap<AnyType> rhs )
    {
        if( this == rhs )
            return;

        root = merge( root, rhs.root );
        rhs.root = null;
    }

    private LeftistNode<AnyType> merge( LeftistNode<AnyType> h1, LeftistNode<AnyType> h2 )
    {
        if( h1 == null )
            return h2;
        if( h2 == null )
            return h1;
        if( h1.element.compareTo( h2.element ) < 0 )
            return merge1( h1, h2 );
        else
            return merge1( h2, h1 );
    }

    private LeftistNode<AnyType> merge1( LeftistNode<AnyType> h1, LeftistNode<AnyType> h2 )
    {
        if( h1.left == null )
            h1.left = h2;
        else
        {
            h1.right = merge( h1.right, h2 );
            if( h1.left.npl < h1.right.npl )
                swapChildren( h1 );
            h1.npl = h1.right.npl + 1;
        }
        return h1;
    }

    private static <AnyType> void swapChildren( LeftistNode<AnyType> t )
    {
        LeftistNode<AnyType> tmp = t.left;
        t.left = t.right;
        t.right = tmp;
    }

    public AnyType deleteMin( )
    {
        if( isEmpty( ) )
            throw new IllegalStateException( );

        AnyType minItem = root.element;
        root = merge( root.left, root.right );

        return minItem;
    }

    public boolean isEmpty( )
    {
        return root == null;
    }

    private static class LeftistNode<AnyType>
    {
        LeftistNode( AnyType theElement )
        {
            this( theElement, null, null );
        }

        LeftistNode( AnyType theElement, LeftistNode<AnyType> lt, LeftistNode<AnyType> rt )
        {
            element = theElement;
            left    = lt;
            right   = rt;
            npl     = 0;
        }

        AnyType                element;
        LeftistNode<AnyType> left;
        LeftistNode<AnyType> right;
        int                    npl;
    }

    private LeftistNode<AnyType> root;

    public boolean repOk( )
    {
        Set<LeftistNode<AnyType>> seen = new HashSet<>( );
        return isTree( root, seen ) && isLeftist( root ) && isHeap( root );
    }

    private boolean isTree( LeftistNode<AnyType> t, Set<LeftistNode<AnyType>> seen )
    {
        if( t == null )
            return true;
        return seen.add( t ) && isTree( t.left, seen ) && isTree( t.right, seen );
    }

    private int npl( LeftistNode<AnyType> t )
    {
        return t == null ? -1 : t.npl;
    }

    private boolean isLeftist( LeftistNode<AnyType> t )
    {
        if( t == null )
            return true;
        if( npl( t.left ) < npl( t.right ) )
            return false;
        return t.npl == npl( t.right ) + 1 && isLeftist( t.left ) && isLeftist( t.right );
    }

    private boolean isHeap( LeftistNode<AnyType> t )
    {
        if( t == null )
            return true;
        if( t.left != null && t.left.element.compareTo( t.element ) < 0 )
            return false;
        if( t.right != null && t.right.element.compareTo( t.element ) < 0 )
            return false;
        return isHeap( t.left ) && isHeap( t.right );
    }
}
